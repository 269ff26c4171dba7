/* The language of what is said to people: chosen once, when the program begins. */
#ifndef LANGUAGE_H
#define LANGUAGE_H

enum language { ENGLISH, ITALIAN };

extern enum language language;

/* one of two texts, by the language */
#define IN(english, italian) (language == ITALIAN ? (italian) : (english))

#endif

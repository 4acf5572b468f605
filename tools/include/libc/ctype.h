#ifndef MEMCAD_CTYPE_H
#define MEMCAD_CTYPE_H
int isdigit(int character);
int isalpha(int character);
int isalnum(int character);
int isspace(int character);
int isupper(int character);
int islower(int character);
int ispunct(int character);
int toupper(int character);
int tolower(int character);
#endif

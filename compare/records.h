/* Tries records of all kinds of right and wrong fields, at chosen places of an image. */
#ifndef RECORDS_H
#define RECORDS_H

#include <stdbool.h>

void hold_records(void);

/* Gives whether every refusal of a record came at each of the places, and two bad records came. */
bool print_records(void);

#endif

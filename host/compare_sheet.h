/* The calls on an amendment sheet, compared with the reference's and with the story that document 01 tells of them. */
#ifndef COMPARE_SHEET_H
#define COMPARE_SHEET_H

#include "chance.h"
#include "trial.h"

/* The amendments of a case, made with its chance. */
void compare_sheet(struct trials *trials, struct chance *chance);

void print_sheet_reached(struct trials *trials);

#endif

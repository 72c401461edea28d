/* The examples of document 01, and the files of example/. */
#ifndef PAPER_H
#define PAPER_H

#include "tally.h"

/* Run from the repository's folder, where the files are found. */
void check_paper(struct tally *tally);

#endif

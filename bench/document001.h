/* Document 001's experiment (sections 6 and 7): a salt-and-pepper page of 240 by 256, probability 0.25,
 * segments of 150 pixels in all orientations, against the conventional method. */
#ifndef BENCH_DOCUMENT001_H
#define BENCH_DOCUMENT001_H

/* Prints a line for each orientation and operation: seconds of Sotrugla, of the conventional method pixel by
 * pixel, and of the same page by page. Orientations are so many degrees apart. */
void repeat_document001(int degrees, int rounds);

#endif

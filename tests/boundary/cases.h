/* What no line of the programs can say: limits, bytes that name no kind, blobs lent twice, short buffers. */
#ifndef CASES_H
#define CASES_H

void try_cases(void);

/* Those of the exports about files of vectors, which try_cases tries too. */
void try_files(void);

/* Fails unless every export gave exactly the refusals that it can give. */
void all_refusals_seen(void);

#endif

/* The paper's own examples and edges, with the numbers it gives. */
#ifndef PEER_EXAMPLES_H
#define PEER_EXAMPLES_H

/* Tries them all on both sides. */
void try_examples(void);

#endif

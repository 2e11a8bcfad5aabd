/* Tables whose keys are objects, compared by eq?, and functions that wait for the death of an object.
 *
 * C knows a key by its address alone, and no address keeps an object alive. A flip gives each object another address, so after each flip the
 * tables ask the heap where each of their keys went, or that it died. */
#ifndef HASHTABLES_H
#define HASHTABLES_H

/* Makes the table of the functions that wait. */
void make_finalizers(void);

#endif

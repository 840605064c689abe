/* A pair as it is sent: for each place its kind (4 bytes) and four coordinates (8 each), low byte first. The answer: the
 * word (4), the nine cells, the word of the two boxes' region (4) and the region of the cells (4). */
enum { PLACE = 4 + 4 * 8, SENT = 2 * PLACE, RETURNED = 4 + 9 + 4 + 4 };

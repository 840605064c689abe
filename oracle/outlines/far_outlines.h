/* A task as it is sent: the count of numbers and the count of points (4 bytes each), the numbers, then x and y of each
 * point (4 each), low byte first. The answer: a word for each point (4). */
enum { SENT_HEAD = 8 };

/* A task as it is sent: whether a shape is to be written, the count of the text's bytes, the shape's kind and count of
 * numbers, the room and the offset (8 bytes each), then the text's bytes or the shape's numbers (4 each), low byte
 * first. The answer: a `reading` or a `writing` as both compilers lay it out. */
enum { SENT = 6 };

/* Where the parts of a session stand in its bytes (krasvome.h describes them), for those who look inside: the comparison, and the calls by hand. */
#ifndef SESSION_BYTES_H
#define SESSION_BYTES_H

enum {
    OLDER_AT = 3, /* the vector before the last one, in 256 bytes */
    LAST_AT = OLDER_AT + 256,
    CARD_AT = LAST_AT + 256,
    LONGEST_CARD = 256 * 21 + 4,
    CARD_TO = CARD_AT + LONGEST_CARD
};

#endif

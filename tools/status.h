/* What the command ends with. */
#ifndef STATUS_H
#define STATUS_H

enum status {
    ACCEPTED = 0,
    REFUSED = 1, /* a datagram was refused, is cut or is in fragments */
    TROUBLE = 2  /* the words of the command or the file are at fault */
};

#endif

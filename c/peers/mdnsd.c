/* mdnsd's parser (Debian's libmdnsd-dev) as a reader that the bench can load: whether it takes a message.
 *
 * Its message_parse takes no length: it reads a packet that stands in a buffer of 65,535 bytes with zeros behind it. Of struct message only what stands before
 * the scratch of 65,535 bytes is cleared, which is all that the parser reads before it writes; its own daemon clears all of it for each packet. */

#include <stdbool.h>
#include <stddef.h>
#include <string.h>

#include <libmdnsd/1035.h>

enum { ZEROS_BEHIND = 512 };

bool peer_reads(const unsigned char *message, size_t length)
{
    static unsigned char packet[MAX_PACKET_LEN + 1];
    static struct message parsed;
    if (length + ZEROS_BEHIND > MAX_PACKET_LEN)
        return false;
    memcpy(packet, message, length);
    memset(packet + length, 0, ZEROS_BEHIND);
    memset(&parsed, 0, offsetof(struct message, _packet));
    return message_parse(&parsed, packet) == 0;
}

/*
 * Tests the most memory that a channel of the module can have, which is a little less than 4 GiB on each machine. The
 * creation of a channel that needs more must fail with TCRX_NO_MEMORY, without first requesting the memory.
 */
#include "tcrx.h"

#include <stdio.h>

enum { QUEUES = 300, LONGEST = 65542 };

int main(void) {
    static tcrx_queue queues[QUEUES];
    const tcrx_settings settings = {1, 10, 1, 0, 1};
    tcrx_channel channel = TCRX_HOLDS_NONE;
    for (unsigned i = 0; i < QUEUES; i++) {
        queues[i].apid = (uint16_t)i;
        queues[i].capacity = 256;
    }
    const tcrx_count needed = tcrx_storage_with_limits(settings, queues, QUEUES, NULL, 0, LONGEST, NULL, 0);
    const tcrx_status large = tcrx_channel_new_with_limits(&channel, settings, queues, QUEUES, NULL, 0, LONGEST, NULL, 0);
    const tcrx_status small = tcrx_channel_new_with_limits(&channel, settings, queues, 1, NULL, 0, 1, NULL, 0);
    const int good = needed.count >> 32 == 1 && large == TCRX_NO_MEMORY && small == TCRX_DONE;
    printf("%llu bytes: status %d; a channel with one queue: status %d\n", (unsigned long long)needed.count, (int)large, (int)small);
    tcrx_channel_free(&channel);
    return good ? 0 : 1;
}

/* A second translation unit of tests/c/exchanges.c: both headers may stand in several, and more than once in one. */
#include "widosha_host.h"
#include "widosha.h"
#include "widosha_host.h"

int second_unit(const struct widosha_host *host, const uint8_t *frame, size_t length);

/* Whether the host's answer is this frame, from short address 0000. */
int second_unit(const struct widosha_host *host, const uint8_t *frame, size_t length)
{
    struct widosha_host_answer answer = widosha_host_answer_at(host, 0);
    uint8_t info[WIDOSHA_INFO_LENGTH];
    return widosha_frame_abi_version() == WIDOSHA_ABI_VERSION && answer.length == length
        && widosha_host_frame(host, answer.buffer) == frame
        && widosha_preliminary_frame_info(frame, length, info, sizeof info - 1) == WIDOSHA_REFUSAL_STATE
        && widosha_preliminary_frame_info(frame, length, info, sizeof info) == 0 && info[22] == WIDOSHA_ADDRESS_SHORT && info[31] == 9;
}

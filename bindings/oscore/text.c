/* text.c: what an answer says. */
#include "ks_oscore.h"

const char *ks_oscore_text(int32_t answer) {
    switch (answer) {
    case KS_OSCORE_PASSED: return "an Empty message";
    case KS_OSCORE_COPY: return "a copy";
    case KS_OSCORE_UNPROTECTED_REQUEST: return "an unprotected request";
    case KS_OSCORE_UNPROTECTED_RESPONSE: return "an unprotected response";
    case KS_OSCORE_MALFORMED: return "no message that can be sealed or opened";
    case KS_OSCORE_OTHER_CONTEXT: return "it names another context";
    case KS_OSCORE_FORGED: return "it does not open";
    case KS_OSCORE_REPLAYED: return "a replay";
    case KS_OSCORE_UNASKED: return "a response to no request that is known";
    case KS_OSCORE_TOKEN_USED: return "the token of a request that may still be answered";
    case KS_OSCORE_FULL: return "too many requests may still be answered";
    case KS_OSCORE_SPENT: return "each sequence number was used";
    case KS_OSCORE_FILE_FAILED: return "the file of numbers failed";
    case KS_OSCORE_FILE_FOREIGN: return "no file of numbers of these keys";
    case KS_OSCORE_FILE_DAMAGED: return "the file of numbers has no whole record";
    case KS_OSCORE_FILE_TAKEN: return "another program has the file of numbers";
    default: return ks_answer_text(answer);
    }
}

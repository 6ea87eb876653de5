/* arbiter_refusal_text as a symbol, for languages that can't include a header: compile this beside libarbiter.a, or into a shared library made
 * from both (docs/HOSTS.md, "Other languages"). The texts are the header's own. */
#define arbiter_refusal_text arbiter_refusal_text_of_header
#include "arbiter.h"
#undef arbiter_refusal_text

const char *arbiter_refusal_text(uint32_t refusal);

const char *arbiter_refusal_text(uint32_t refusal) { return arbiter_refusal_text_of_header(refusal); }

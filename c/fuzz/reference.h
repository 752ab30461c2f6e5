// The reference program's console and player, in rust/fuzz.
#include <stdbool.h>
#include <stddef.h>
#include <stdint.h>

struct reference;
struct reference *reference_new(void);
void reference_free(struct reference *);

// The answer to a line without its LF, which stays until the next call; null where the line has none. There is a line more than the console has: `play TRACE`
// has the player run a trace on the console's responder. It is answered with 'played', or with the refusal of the trace, whose events before that are run, and
// with a line for each claim that is recorded, as the player prints it.
const char *reference_answer(struct reference *, const char *line, size_t bytes, size_t *answer_bytes);

// All that the responder knows, in the order in which a state has it; it stays until the next call.
const char *reference_state(struct reference *, size_t *answer_bytes);

// When the responder's next step is due; false where none is to come.
bool reference_due(const struct reference *, uint64_t *time);

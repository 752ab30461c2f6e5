// The console's lines over the exported functions alone: one responder, one cache, one browser, one proxy and two out buffers, as the console has them; and
// `play TRACE` (reference.h).
#include <stdbool.h>
#include <stddef.h>
#include <stdint.h>

// As at the beginning.
void exported_reset(void);

// Whether the exported functions can be handed what a line says: no port, and no type that is looked up, of more than 16 bits.
bool exported_can(const char *line, size_t bytes);

// The answer to a line that has its form, which stays until the next call.
const char *exported_answer(const char *line, size_t bytes, size_t *answer_bytes);

// All that the responder knows, by the layout of its state; it stays until the next call. Whether it was ever started.
const char *exported_state(size_t *answer_bytes);
bool exported_is_started(void);

// When the responder's next step is due; false where none is to come.
bool exported_due(uint64_t *time);

// What is wrong though no answer shows it, such as a refused call that changed a lent byte; null where nothing is.
const char *exported_wrong(void);

// How many entries the table has.
size_t exported_entries(void);

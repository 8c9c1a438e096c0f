/* What a program's module gives and what it asks of the system: numbers and addresses, with lengths of 64 bits on every processor. */
#include <stdint.h>

int32_t program_main(void);

int64_t program_read(int32_t file, uint8_t *bytes, uint64_t length);
int64_t program_write(int32_t file, const uint8_t *bytes, uint64_t length);
int32_t program_rattle_errno(void);
void program_rattle_set_errno(int32_t error);
int64_t program_rattle_arg(uint64_t number, uint8_t *bytes, uint64_t length);

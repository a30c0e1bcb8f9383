/* Calls the library without the standard library of Rust. */
#include <stdint.h>
#include <string.h>

int64_t bare_run(uint8_t *bytes);

/* Named by Rust's core library, which is compiled to unwind; nothing here does. */
void rust_eh_personality(void);
void rust_eh_personality(void) {}

int main(void)
{
    uint8_t bytes[11] = {0};

    return bare_run(bytes) == 62 && memcmp(bytes, "-13", 4) == 0 ? 0 : 1;
}

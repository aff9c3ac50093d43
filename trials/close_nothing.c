/* Closes that free nothing: trials/sanitizers.sh links them in place of the library's (ld --wrap), and a check for leaks has to find
 * what they keep. */
#include "wozgirt.h"

void __wrap_wozgirt_close(struct wozgirt_ring *ring);
void __wrap_wozgirt_locks_close(struct wozgirt_locks *locks);

void __wrap_wozgirt_close(struct wozgirt_ring *ring)
{
    ring->at = 0;
}

void __wrap_wozgirt_locks_close(struct wozgirt_locks *locks)
{
    locks->at = 0;
}

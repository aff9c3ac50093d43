#include <stdio.h>
#include <wozgirt.h>

int main(void)
{
    const uint32_t start[3] = {0, 0, 0};
    struct wozgirt_ring ring = {0};
    struct wozgirt_answer answer;
    uint8_t text[4096];
    uint64_t size;
    uint32_t code = wozgirt_open(&ring, 3, 3, start, 3, 1);
    for (uint32_t machine = 0; code == WOZGIRT_DONE && machine < 3; machine++) {
        code = wozgirt_pass(&ring, 0, machine, 5, &answer);
        printf("machine %u: grant %d, result %d\n", machine, (int)answer.number, (int)answer.result);
    }
    puts(wozgirt_text(wozgirt_pass(&ring, 0, 7, 5, &answer)));
    if (code == WOZGIRT_DONE && wozgirt_save(&ring, text, sizeof text, &size) == WOZGIRT_DONE) {
        FILE *file = fopen("history.txt", "wb");
        if (!file || fwrite(text, 1, size, file) != size || fclose(file) != 0)
            code = 1;
    }
    wozgirt_close(&ring);
    return code == WOZGIRT_DONE ? 0 : 1;
}

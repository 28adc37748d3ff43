/* Calls the library on each file that is named, without options and with those of GitHub. tools/profiled.py makes a profile of these runs. */
#include <pulldown_cmark.h>
#include <stdio.h>
#include <stdlib.h>

typedef uint32_t call(const uint8_t *, size_t, uint32_t, uint8_t *, size_t, size_t *);

/* Calls with a buffer that is large enough for the result of each file. Returns the length of the result. */
static size_t called(call *one, const uint8_t *text, size_t length, uint32_t options, uint8_t *room, size_t room_length) {
    size_t size = 0;
    if (one(text, length, options, room, room_length, &size) != PCM_DONE) exit(1);
    return size;
}

int main(int count, char **files) {
    for (int at = 1; at < count; at++) {
        FILE *file = fopen(files[at], "rb");
        if (!file || fseek(file, 0, SEEK_END)) return 1;
        size_t length = (size_t)ftell(file), room_length = 64 * length + 4096;
        rewind(file);
        uint8_t *text = malloc(length + 1), *room = malloc(room_length), *html = malloc(room_length);
        if (!text || !room || !html || fread(text, 1, length, file) != length) return 1;
        fclose(file);
        const uint32_t options[] = {0, PCM_GITHUB};
        for (int which = 0; which < 2; which++) {
            called(pcm_html, text, length, options[which], room, room_length);
            called(pcm_safe_html, text, length, options[which], room, room_length);
            size_t size = called(pcm_events, text, length, options[which], room, room_length);
            if (pcm_render(room, size, html, room_length, &size) != PCM_DONE) return 1;
        }
        free(text);
        free(room);
        free(html);
    }
    return 0;
}

/* A stack through three formats: ELF code calls functions of a PE image, these of a Mach-O image, and these
 * ELF code again. The images are mapped at the addresses that they were linked for. Their files stand beside
 * the program, with .pe and .macho after its name. */
#include "placed_images.h"
#include "stopped.h"
#include "three_formats.h"

static struct Images images;

KEPT Word turn(Word turns, const struct Images *all) {
    if (turns == 0) {
        wait_here();
        return 1;
    }
    return all->pe(turns - 1, all) * 3 + turns;
}

/* Before main, so that a run from there has the images. */
static __attribute__((constructor)) void place_images(int count, char **words) {
    (void)count;
    images.pe = (void *)placed_pe(contents(words[0], "pe"));
    images.macho = (void *)placed_macho(contents(words[0], "macho"));
    images.elf = turn;
}

int main(void) {
    return (int)turn(2, &images);
}

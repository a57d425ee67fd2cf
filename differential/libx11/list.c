/* Lists a mask with libX11's own reader, in the form of our listing program: for comparison only. */
#include <X11/Xlib.h>
#include <X11/Xutil.h>
#include <stdio.h>

int main(int argc, char **argv)
{
    unsigned width, height;
    unsigned char *data = NULL;
    int x, y;
    if (argc < 2 || XReadBitmapFileData(argv[1], &width, &height, &data, &x, &y) != BitmapSuccess) {
        printf("refused\n");
        return 0;
    }
    unsigned long ink = 0;
    for (unsigned j = 0; j < height; j++)
        for (unsigned i = 0; i < width; i++)
            ink += (data[(unsigned long)j * ((width + 7) / 8) + i / 8] >> (i % 8)) & 1;
    printf("width %u\nheight %u\nhotspot %d %d\nink %lu\n", width, height, x, y, ink);
    XFree(data);
    return 0;
}

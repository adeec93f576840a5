/* Symbols by libqrencode, whose own search parts the data into segments. */
#include "peer.h"
#include <qrencode.h>

static int make(const struct job *job, int *dark)
{
    static const QRecLevel levels[] = {QR_ECLEVEL_L, QR_ECLEVEL_M, QR_ECLEVEL_Q, QR_ECLEVEL_H};
    const QRecLevel level = levels[job->level];
    const char *text = (const char *)job->bytes;
    QRcode *code = job->micro ? QRcode_encodeStringMQR(text, job->version, level, QR_MODE_8, 1)
                              : QRcode_encodeString(text, job->version, level, QR_MODE_KANJI, 1);
    if (!code)
        fail("refused");
    const int side = code->width;
    for (int k = 0; dark && k < side * side; k++)
        *dark += code->data[k] & 1;
    QRcode_free(code);
    return side;
}

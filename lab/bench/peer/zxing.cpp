// Symbols by the writer of zxing-cpp, which chooses the version by itself, without a quiet zone.
#include "peer.h"
#include <ZXing/BarcodeFormat.h>
#include <ZXing/BitMatrix.h>
#include <ZXing/CharacterSet.h>
#include <ZXing/MultiFormatWriter.h>
#include <string>

static int make(const job *job, int *dark)
{
    // The levels as zxing numbers them, from L to H.
    static const int levels[] = {2, 4, 6, 8};
    static const std::wstring text(job->bytes, job->bytes + job->length);
    if (job->micro)
        fail("no Micro");
    auto writer = ZXing::MultiFormatWriter(ZXing::BarcodeFormat::QRCode)
                      .setEncoding(ZXing::CharacterSet::ISO8859_1)
                      .setEccLevel(levels[job->level]).setMargin(0);
    ZXing::BitMatrix symbol = writer.encode(text, 0, 0);
    const int side = symbol.width();
    for (int k = 0; dark && k < side * side; k++)
        *dark += symbol.get(k % side, k / side);
    return side;
}

// zxing [sequence]: reads PGM files, one behind the other, and writes for each a line: what zxing-cpp
// shows of it, as the hexadecimal digits of its UTF-8; `-` where it finds nothing. Of a sequence
// it writes before these the place, how many there are and the parity, and at the end the digits of
// the text of all, as it joins them.
#define ZX_USE_UTF8
#include <ZXing/ReadBarcode.h>
#include <cstdio>
#include <iostream>
#include <string>
#include <vector>

static void put_digits(const std::string &text)
{
    for (unsigned char byte : text)
        std::printf("%02x", byte);
    std::puts("");
}

int main(int argc, char **)
{
    const bool is_sequence = argc > 1;
    auto hints = ZXing::DecodeHints().setFormats(
        ZXing::BarcodeFormat::QRCode | ZXing::BarcodeFormat::MicroQRCode);
    if (is_sequence)
        hints.setCharacterSet("UTF-8");
    std::string kind;
    int across, down, most;
    std::vector<ZXing::Result> results;
    while (std::cin >> kind >> across >> down >> most) {
        std::string pixels(across * down, 0);
        std::cin.get();
        std::cin.read(&pixels[0], pixels.size());
        auto result = ZXing::ReadBarcode(
            {(const uint8_t *)pixels.data(), across, down, ZXing::ImageFormat::Lum}, hints);
        if (is_sequence)
            std::printf("%d %d %s ", result.sequenceIndex(), result.sequenceSize(),
                result.sequenceId().c_str());
        else if (!result.isValid()) {
            std::puts("-");
            continue;
        }
        put_digits(result.text());
        results.push_back(result);
    }
    if (is_sequence)
        put_digits(ZXing::MergeStructuredAppendSequence(results).text());
}

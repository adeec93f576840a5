// readers zxing|zbar COUNT: has a reader read the PGM file of a square picture on standard input
// COUNT times, and fails if it reads nothing.
#include <zbar.h>

#define ZX_USE_UTF8
#include <ZXing/DecodeHints.h>
#include <ZXing/ImageView.h>
#include <ZXing/ReadBarcode.h>
#include <iostream>
#include <string>
#include <vector>

static bool by_zxing(const std::vector<uint8_t> &pixels, int side)
{
    ZXing::DecodeHints hints;
    hints.setFormats(ZXing::BarcodeFormat::QRCode);
    hints.setIsPure(true);
    hints.setBinarizer(ZXing::Binarizer::FixedThreshold);
    ZXing::ImageView picture(pixels.data(), side, side, ZXing::ImageFormat::Lum);
    return ZXing::ReadBarcode(picture, hints).isValid();
}

static bool by_zbar(const std::vector<uint8_t> &pixels, int side)
{
    zbar::ImageScanner scanner;
    scanner.set_config(zbar::ZBAR_NONE, zbar::ZBAR_CFG_ENABLE, 0);
    scanner.set_config(zbar::ZBAR_QRCODE, zbar::ZBAR_CFG_ENABLE, 1);
    zbar::Image image(side, side, "Y800", pixels.data(), pixels.size());
    return scanner.scan(image) > 0;
}

int main(int argc, char **argv)
{
    std::string kind;
    int across, down, most;
    if (argc != 3 || !(std::cin >> kind >> across >> down >> most))
        return 2;
    std::vector<uint8_t> pixels(across * across);
    std::cin.get();
    std::cin.read((char *)pixels.data(), pixels.size());
    bool is_zbar = argv[1] == std::string("zbar"), is_read = true;
    for (int i = 0; i < std::stoi(argv[2]); i++)
        is_read &= is_zbar ? by_zbar(pixels, across) : by_zxing(pixels, across);
    return !is_read;
}

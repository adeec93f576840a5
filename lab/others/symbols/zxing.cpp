// zxing LEVEL bytes|UTF-8 FILE: the rows of the symbol of the bytes of FILE by the writer of
// zxing-cpp, dark modules as `#`. With `UTF-8` they are taken for UTF-8, which the writer announces
// by the number 26 of that character set; with `bytes` they are written as they are.
#include <ZXing/BarcodeFormat.h>
#include <ZXing/BitMatrix.h>
#include <ZXing/CharacterSet.h>
#include <ZXing/MultiFormatWriter.h>
#include <ZXing/TextUtfEncoding.h>
#include <fstream>
#include <iostream>
#include <iterator>

int main(int argc, char **argv)
{
    if (argc != 4)
        return 2;
    std::ifstream file(argv[3], std::ios::binary);
    std::string bytes((std::istreambuf_iterator<char>(file)), {});
    auto writer = ZXing::MultiFormatWriter(ZXing::BarcodeFormat::QRCode).setMargin(0);
    std::wstring text;
    if (std::string(argv[2]) == "UTF-8") {
        text = ZXing::TextUtfEncoding::FromUtf8(bytes);
        writer.setEncoding(ZXing::CharacterSet::UTF8);
    } else {
        for (unsigned char byte : bytes)
            text.push_back(byte);
    }
    // the levels as zxing numbers them: 2 for L, 4, 6, and 8 for H
    writer.setEccLevel(2 * (int)std::string("LMQH").find(argv[1][0]) + 2);
    ZXing::BitMatrix symbol = writer.encode(text, 0, 0);
    for (int y = 0; y < symbol.height(); y++) {
        for (int x = 0; x < symbol.width(); x++)
            std::cout << (symbol.get(x, y) ? '#' : '.');
        std::cout << "\n";
    }
}

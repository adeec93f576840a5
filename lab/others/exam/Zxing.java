import com.google.zxing.*;
import com.google.zxing.common.HybridBinarizer;
import com.google.zxing.qrcode.QRCodeReader;
import java.awt.image.BufferedImage;
import java.io.*;
import java.nio.charset.StandardCharsets;
import javax.imageio.ImageIO;

/** Prints the name of each picture that ZXing reads, a tab, and its text in hex. */
public class Zxing {
    public static void main(String[] names) throws IOException {
        for (String name : names) {
            BufferedImage image = ImageIO.read(new File(name));
            int width = image.getWidth(), height = image.getHeight();
            int[] pixels = image.getRGB(0, 0, width, height, null, 0, width);
            LuminanceSource source = new RGBLuminanceSource(width, height, pixels);
            try {
                Result result = new QRCodeReader().decode(new BinaryBitmap(new HybridBinarizer(source)));
                StringBuilder hex = new StringBuilder();
                for (byte it : result.getText().getBytes(StandardCharsets.UTF_8)) {
                    hex.append(String.format("%02x", it));
                }
                System.out.println(new File(name).getName() + "\t" + hex);
            } catch (ReaderException error) {
                continue;
            }
        }
    }
}

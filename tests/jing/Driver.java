import com.thaiopensource.util.PropertyMapBuilder;
import com.thaiopensource.validate.ValidateProperty;
import com.thaiopensource.validate.ValidationDriver;
import java.io.BufferedReader;
import java.io.InputStreamReader;
import java.io.PrintStream;
import java.io.StringReader;
import java.nio.charset.StandardCharsets;
import org.xml.sax.ErrorHandler;
import org.xml.sax.InputSource;
import org.xml.sax.SAXParseException;

/** Many questions to jing in one run. A line "S schema" loads a schema; a line "D document" prints yes or no, or what went wrong. */
public final class Driver {
  private static final class Quiet implements ErrorHandler {
    @Override public void warning(SAXParseException e) {}
    @Override public void error(SAXParseException e) {}
    @Override public void fatalError(SAXParseException e) throws SAXParseException { throw e; }
  }

  private static InputSource source(String text) {
    return new InputSource(new StringReader(text));
  }

  public static void main(String[] args) throws Exception {
    BufferedReader in = new BufferedReader(new InputStreamReader(System.in, StandardCharsets.UTF_8));
    PrintStream out = new PrintStream(System.out, true, "US-ASCII");
    ValidationDriver driver = null;
    boolean loaded = false;
    for (String line = in.readLine(); line != null; line = in.readLine()) {
      String text = line.substring(2);
      if (line.charAt(0) == 'S') {
        PropertyMapBuilder properties = new PropertyMapBuilder();
        properties.put(ValidateProperty.ERROR_HANDLER, new Quiet());
        driver = new ValidationDriver(properties.toPropertyMap());
        loaded = driver.loadSchema(source(text));
      } else if (!loaded) {
        out.println("the schema did not load");
      } else {
        try {
          out.println(driver.validate(source(text)) ? "yes" : "no");
        } catch (SAXParseException e) {
          out.println("not well-formed: " + e.getMessage());
        }
      }
    }
  }
}

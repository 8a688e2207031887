import com.sun.net.httpserver.HttpServer;
import java.io.IOException;
import java.net.InetSocketAddress;

/** Answers each request with the message that is on the class path. */
public class Main {
    public static void main(String[] words) throws IOException {
        byte[] message = Main.class.getResourceAsStream("/message.txt").readAllBytes();
        byte[] answer = ("hello from java, " + new String(message)).getBytes();
        int port = Integer.parseInt(System.getenv("PORT"));
        HttpServer server = HttpServer.create(new InetSocketAddress("127.0.0.1", port), 0);
        server.createContext("/", exchange -> {
            exchange.sendResponseHeaders(200, answer.length);
            exchange.getResponseBody().write(answer);
            exchange.close();
        });
        server.start();
    }
}

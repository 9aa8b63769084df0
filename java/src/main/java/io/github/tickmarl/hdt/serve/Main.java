package io.github.tickmarl.hdt.serve;

import io.github.tickmarl.hdt.HdtLibraryException;
import java.io.IOException;

/** The command: {@code java -jar tickmarl-hdt.jar serve data=graph.hdt}. */
public final class Main {
    private Main() {}

    /**
     * Serves files until the process ends.
     *
     * @param arguments {@code serve}, options and {@code name=file}; see {@code --help}
     */
    public static void main(String[] arguments) {
        try {
            Options options = Options.of(arguments);
            if (options == null) {
                System.out.print(Options.HELP);
                return;
            }
            // (a small answer would wait 40 ms else, and a client that sends or reads nothing would keep a thread)
            System.setProperty("sun.net.httpserver.nodelay", "true");
            System.setProperty("sun.net.httpserver.maxReqTime", "60");
            System.setProperty("sun.net.httpserver.maxRspTime", "3600");
            Endpoint endpoint = new Endpoint(options);
            Runtime.getRuntime().addShutdownHook(new Thread(endpoint::close));
            endpoint.start();
            System.out.println(endpoint.address());
            System.out.flush();
        } catch (IllegalArgumentException error) {
            end(error.getMessage() + "\nFor more information, try 'serve --help'.", 2);
        } catch (IOException error) {
            end(error instanceof java.nio.file.NoSuchFileException
                ? error.getMessage() + ": no such file" : error.getMessage(), 3);
        } catch (HdtLibraryException error) {
            end(error.getMessage(), 3);
        }
    }

    private static void end(String message, int status) {
        System.err.println("tickmarl-hdt: " + message);
        System.exit(status);
    }
}

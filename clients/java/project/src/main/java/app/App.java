package app;

import dchm.client.DchmClient;
import dchm.client.Fn;
import dchm.client.NotMadeException;

/** Counts at a server, if there is one: App PORT. */
public final class App {
    private App() {
    }

    public static void main(String[] words) {
        System.out.println("dchm-client " + DchmClient.class.getPackage().getImplementationVersion());
        try (DchmClient client = DchmClient.at(Integer.parseInt(words[0])).lazy()) {
            System.out.println(client.longs().merge("runs", 1L, Fn.SUM));
        } catch (NotMadeException error) {
            System.out.println("no server");
        }
    }
}

import java.io.ByteArrayOutputStream;
import java.io.File;
import java.nio.charset.StandardCharsets;
import java.nio.file.Files;
import java.nio.file.Path;
import java.util.Arrays;
import java.util.List;
import java.util.Set;
import java.util.TreeSet;
import java.util.stream.Collectors;
import org.semanticweb.owlapi.apibinding.OWLManager;
import org.semanticweb.owlapi.formats.FunctionalSyntaxDocumentFormat;
import org.semanticweb.owlapi.functional.parser.OWLFunctionalSyntaxOWLParser;
import org.semanticweb.owlapi.io.StringDocumentSource;
import org.semanticweb.owlapi.model.AxiomType;
import org.semanticweb.owlapi.model.IRI;
import org.semanticweb.owlapi.model.OWLAxiom;
import org.semanticweb.owlapi.model.OWLOntology;
import org.semanticweb.owlapi.model.OWLOntologyLoaderConfiguration;
import org.semanticweb.owlapi.model.OWLOntologyManager;

/**
 * Reads documents in functional-style syntax with the OWL API.
 *
 * <p>For each document N.ofn of the folder it writes N.read: a line "accepted" and then the axioms,
 * each once, in the form of {@link Canonical}; or a line "refused" with the message. With a second
 * argument "save", an accepted document is also saved in three ways, N.prefix.saved, N.full.saved
 * and N.named.saved, and each of these is read again, into N.prefix.read and so on.
 */
public final class ReadAxioms {
    private static final String BASE = "http://example.org/shelf#";
    private static final OWLOntologyManager MANAGER = OWLManager.createOWLOntologyManager();

    public static void main(String[] arguments) throws Exception {
        Path folder = Path.of(arguments[0]);
        boolean saves = arguments.length > 1 && arguments[1].equals("save");
        File[] files = folder.toFile().listFiles((in, name) -> name.endsWith(".ofn"));
        Arrays.sort(files);
        for (File file : files) {
            String name = file.getName().substring(0, file.getName().length() - 4);
            OWLOntology read = read(file.toPath(), folder.resolve(name + ".read"));
            if (saves && read != null) {
                saveInEachWay(read, folder, name);
            }
        }
    }

    /** The ontology of a document, or null where it is refused. What was read is written down. */
    private static OWLOntology read(Path document, Path report) throws Exception {
        String text = Files.readString(document, StandardCharsets.UTF_8);
        OWLOntology ontology = MANAGER.createOntology();
        try {
            new OWLFunctionalSyntaxOWLParser()
                    .parse(new StringDocumentSource(text), ontology, new OWLOntologyLoaderConfiguration());
        } catch (RuntimeException refused) {
            MANAGER.removeOntology(ontology);
            String message = String.valueOf(refused.getMessage()).lines().findFirst().orElse("");
            Files.writeString(report, "refused " + message + "\n");
            return null;
        }
        MANAGER.removeOntology(ontology);
        Files.writeString(report, "accepted\n" + axioms(ontology));
        return ontology;
    }

    /** The axioms but for declarations, a line each, sorted. */
    private static String axioms(OWLOntology ontology) {
        Canonical canonical = new Canonical(BASE);
        Set<String> lines = new TreeSet<>();
        ontology.axioms()
                .filter(axiom -> !axiom.isOfType(AxiomType.DECLARATION))
                .forEach(axiom -> lines.add(canonical.axiom(axiom)));
        return lines.stream().map(line -> line + "\n").collect(Collectors.joining());
    }

    /** Under the empty prefix, with full IRIs, and under another prefix; each is read again. */
    private static void saveInEachWay(OWLOntology read, Path folder, String name) throws Exception {
        FunctionalSyntaxDocumentFormat prefix = new FunctionalSyntaxDocumentFormat();
        prefix.setDefaultPrefix(BASE);
        FunctionalSyntaxDocumentFormat named = new FunctionalSyntaxDocumentFormat();
        named.setPrefix("games:", BASE);
        IRI iri = IRI.create(BASE.substring(0, BASE.length() - 1));
        save(read, iri, prefix, folder, name + ".prefix");
        save(read, null, new FunctionalSyntaxDocumentFormat(), folder, name + ".full");
        save(read, null, named, folder, name + ".named");
    }

    /** Saves the axioms as an ontology of this name, or of none, and reads the document again. */
    private static void save(
            OWLOntology read, IRI iri, FunctionalSyntaxDocumentFormat format, Path folder, String name)
            throws Exception {
        List<OWLAxiom> axioms = read.axioms().collect(Collectors.toList());
        OWLOntology copy = iri == null ? MANAGER.createOntology() : MANAGER.createOntology(iri);
        copy.add(axioms);
        // The prefixes that it writes are those of the ontology's own format.
        MANAGER.setOntologyFormat(copy, format);
        ByteArrayOutputStream document = new ByteArrayOutputStream();
        MANAGER.saveOntology(copy, format, document);
        MANAGER.removeOntology(copy);
        Files.write(folder.resolve(name + ".saved"), document.toByteArray());
        read(folder.resolve(name + ".saved"), folder.resolve(name + ".read"));
    }
}

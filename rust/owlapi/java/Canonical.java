import java.util.Collection;
import java.util.Set;
import java.util.TreeSet;
import java.util.stream.Collectors;
import org.semanticweb.owlapi.model.IRI;
import org.semanticweb.owlapi.model.OWLAnnotation;
import org.semanticweb.owlapi.model.OWLAxiom;
import org.semanticweb.owlapi.model.OWLClassExpression;
import org.semanticweb.owlapi.model.OWLLiteral;
import org.semanticweb.owlapi.model.OWLObjectIntersectionOf;
import org.semanticweb.owlapi.model.OWLObjectPropertyExpression;
import org.semanticweb.owlapi.model.OWLObjectSomeValuesFrom;
import org.semanticweb.owlapi.model.OWLSubClassOfAxiom;

/**
 * Axioms in a simple form that the other side prints too.
 *
 * <p>A line is "S left right", or U where the one annotation is the comment "usual". A class is its
 * name, * for owl:Thing, - for owl:Nothing, (/role C), or (& C ..) for an intersection. The OWL API
 * keeps the parts of an intersection as a set, so they are sorted, each once; parts that are
 * intersections are taken apart, since a book only has pairs; one part alone is that part. What no
 * book can have, names that are no words among it, begins with a question mark.
 */
final class Canonical {
    private final String base;

    Canonical(String base) {
        this.base = base;
    }

    String axiom(OWLAxiom axiom) {
        if (!(axiom instanceof OWLSubClassOfAxiom)) {
            return other(axiom);
        }
        OWLSubClassOfAxiom inclusion = (OWLSubClassOfAxiom) axiom;
        Collection<OWLAnnotation> annotations = inclusion.annotations().collect(Collectors.toList());
        String letter = "S";
        if (!annotations.isEmpty()) {
            if (annotations.size() > 1 || !isUsual(annotations.iterator().next())) {
                return other(axiom);
            }
            letter = "U";
        }
        return letter + " " + of(inclusion.getSubClass()) + " " + of(inclusion.getSuperClass());
    }

    private static boolean isUsual(OWLAnnotation annotation) {
        if (!annotation.getProperty().isComment() || annotation.annotations().count() > 0) {
            return false;
        }
        if (!(annotation.getValue() instanceof OWLLiteral)) {
            return false;
        }
        OWLLiteral text = (OWLLiteral) annotation.getValue();
        return text.getLiteral().equals("usual")
                && !text.hasLang()
                && text.getDatatype().isString();
    }

    private String of(OWLClassExpression expression) {
        if (expression.isOWLThing()) {
            return "*";
        }
        if (expression.isOWLNothing()) {
            return "-";
        }
        if (!expression.isAnonymous()) {
            return name(expression.asOWLClass().getIRI());
        }
        if (expression instanceof OWLObjectSomeValuesFrom) {
            OWLObjectSomeValuesFrom some = (OWLObjectSomeValuesFrom) expression;
            return "(/" + role(some.getProperty()) + " " + of(some.getFiller()) + ")";
        }
        if (expression instanceof OWLObjectIntersectionOf) {
            Set<String> parts = new TreeSet<>();
            collect((OWLObjectIntersectionOf) expression, parts);
            return parts.size() == 1 ? parts.iterator().next() : "(& " + String.join(" ", parts) + ")";
        }
        return other(expression);
    }

    private void collect(OWLObjectIntersectionOf intersection, Set<String> parts) {
        intersection
                .operands()
                .forEach(
                        part -> {
                            if (part instanceof OWLObjectIntersectionOf) {
                                collect((OWLObjectIntersectionOf) part, parts);
                            } else {
                                parts.add(of(part));
                            }
                        });
    }

    private String role(OWLObjectPropertyExpression property) {
        return property.isNamed() ? name(property.asOWLObjectProperty().getIRI()) : other(property);
    }

    private String name(IRI iri) {
        String whole = iri.toString();
        String rest = whole.startsWith(base) ? whole.substring(base.length()) : "";
        return rest.matches("[a-z0-9]{1,12}") ? rest : other(whole);
    }

    private static String other(Object what) {
        return "?" + what.toString().replace('\n', ' ');
    }
}

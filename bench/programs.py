"""The programs that bench/run times: each a text of FORM's language, and what is known of it.

A text means the same in both programs. It is always the same text: what looks random comes from a generator with a fixed seed.
"""
import itertools
import math
import random


class Program:
    """A program to time.

    name, says: what it is called, and in a few words what it does; terms: how many terms its right sides and statements give in tform,
    before equal ones are added; write: writes its text to a file; status: how tform ends; in_form: whether FORM runs it too.
    """

    def __init__(self, name, says, terms, write, status=0, in_form=True):
        self.name, self.says, self.terms, self.write, self.status, self.in_form = name, says, terms, write, status, in_form


def plain(*lines):
    """A short text, by its lines."""
    return lambda file: file.write("".join(f"{it}\n" for it in lines))


SIZES = (4, 5, 6, 4, 5, 4, 6, 4, 5, 4)


def ten_sums():
    """Ten sums of four to six terms over ten symbols, with whole coefficients up to 5 in size and here and there a square."""
    seeded, sums = random.Random(3), []
    for size in SIZES:
        terms = {}
        while len(terms) < size:
            symbol, power = f"x{seeded.randrange(10)}", 1 if seeded.random() < 0.85 else 2
            terms.setdefault(symbol + "^2" * (power == 2), seeded.choice([1, 1, 2, 3, 4, 5]) * seeded.choice([1, -1]))
        pieces = [("-" if it < 0 else "+") + (f"{abs(it)}*" if abs(it) > 1 else "") + term for term, it in terms.items()]
        sums.append(f"({''.join(pieces).lstrip('+')})")
    return sums


TEN = "Symbols x0,x1,x2,x3,x4,x5,x6,x7,x8,x9;"


def product(file):
    sums = ten_sums()
    plain(TEN, f"Local F = {sums[0]}", *[f"   *{it}" for it in sums[1:]], ";", ".end")(file)


def modules(file):
    sums = ten_sums()
    plain(TEN, f"Local F = {sums[0]};", *[line for it in sums[1:] for line in (".sort", f"Local F = F*{it};")], ".end")(file)


def literal_sum(file, printed=False):
    """300,000 terms with fractions and powers over twelve symbols, some of which come again."""
    seeded = random.Random(1)
    names = [f"a{it}" for it in range(1, 13)]
    file.write(f"Symbols {','.join(names)};\nLocal F =\n")
    for _ in range(30_000):
        line = []
        for _ in range(10):
            symbols = sorted(seeded.sample(range(12), seeded.randrange(2, 6)))
            powers = [(names[it], seeded.choice([1, 1, 2, 3, 4, 5, 6, -1, -2, -3])) for it in symbols]
            factors = [name if power == 1 else f"{name}^{power}" for name, power in powers]
            coefficient = f"{seeded.randrange(1, 1000)}/{seeded.randrange(2, 100)}"
            line.append(f"{seeded.choice('+-')} {coefficient}*{'*'.join(factors)}")
        file.write(f"  {' '.join(line)}\n")
    file.write(";\n" + "Print;\n" * printed + ".end\n")


def functions(file):
    """A product of ten sums that hold commuting functions of one to three arguments, and words of non-commuting ones."""
    seeded, sums = random.Random(5), []
    kinds = ["x", "y", "z", "{n}", "{n}", "x+{n}*y", "f({n})"]
    for size in (4, 3, 4, 3, 4, 3, 4, 3, 3, 4):
        pieces = [f"{seeded.randrange(2, 6)}*{seeded.choice('AB')}"]
        while len(pieces) < size:
            arguments = [seeded.choice(kinds).format(n=seeded.randrange(1, 99)) for _ in range(seeded.choice([1, 1, 1, 2, 3]))]
            pieces.append(f"{seeded.choice(['x', 'y', 'z^2'])}*{seeded.choice('fgh')}({','.join(arguments)})")
        sums.append(f"({' + '.join(pieces)})")
    plain("Symbols x,y,z;", "CFunctions f,g,h;", "Functions A,B;", f"Local F = {sums[0]}", *[f"   *{it}" for it in sums[1:]], ";", ".end")(file)


LOOP = plain("Symbols x,y;", "Local F = 0", "#do i=1,40000", '#define n "{`i\'%7}"', "#if {`i'%3} == 1", "  + {`i'*2}*x^{`n'+1}", "#else", "  - y^{`n'+`i'%5}", "#endif", "#undefine n", "#enddo", ";", ".end")


def patterns(file):
    """25,000 terms of ten factors each, four of them functions, under three ids with wildcards."""
    seeded = random.Random(7)
    file.write("Symbols x,y,z,a,b,c,n,m;\nCFunctions f,g,h;\nLocal F =\n")
    for _ in range(25_000):
        powers = "*".join(f"{it}^{seeded.randrange(1, 9)}" for it in "xyzabc")
        file.write(f"  + {seeded.randrange(1, 99)}*{powers}*f({seeded.randrange(1, 40)},x)*f({seeded.randrange(1, 40)},y)*g({seeded.randrange(1, 40)},a+b)*g({seeded.randrange(1, 40)},z)\n")
    plain(";", "id f(n?,x) = h(n+1);", "id g(n?,z) = g(n) + n;", "id x^n?*y^m? = h(n,m);", ".end")(file)


def fields(file):
    """20,000 terms with a function of eight symbols and one of one, under an id that looks for the one among the eight."""
    seeded = random.Random(11)
    file.write("Symbols a,b,c,d,e,x,y,z;\nCFunctions f,g,h;\nLocal F =\n")
    for term in range(20_000):
        arguments = ",".join(seeded.choice("abcdexyz") for _ in range(8))
        file.write(f"  + {term + 1}*a^{seeded.randrange(1, 9)}*f({arguments})*g({seeded.choice('abcdexyz')})\n")
    plain(";", "id f(?a,x?,?b)*g(x?) = h(?a,?b,x);", ".end")(file)


def words(file):
    """20,000 words of eight functions that don't commute, under six ids that exchange two of them."""
    seeded = random.Random(12)
    file.write("Symbols x;\nFunctions A,B,C;\nLocal F =\n")
    for term in range(20_000):
        file.write(f"  + x^{term + 1}*{'*'.join(seeded.choice('ABC') for _ in range(8))}\n")
    plain(";", *["id A*B = B*A + 1;"] * 6, ".end")(file)


def dot_products(file):
    """10,000 terms of powers of four dot products, under ids that put sums and a symbol in their places."""
    seeded = random.Random(13)
    file.write("Symbols x,y;\nVectors p,q,k,l,r;\nLocal F =\n")
    for term in range(10_000):
        powers = "*".join(f"{it}^{seeded.randrange(1, 4)}" for it in ("p.q", "k.l", "p.k"))
        file.write(f"  + {term + 1}*x^{term + 1}*{powers}*q.r^2\n")
    plain(";", "id p.q = p.k - q.k;", "id k.l^2 = x;", "id p.k = q.r + l.r;", ".end")(file)


EIGHT = "a + 2*b - c + 3*d - e^2 + f/2 - 5*g + h"


def multiplied(file):
    """16 terms that are multiplied six times by a sum of eight."""
    plain("Symbols x,a,b,c,d,e,f,g,h;", f"Local F = {' + '.join(f'{it + 1}*x^{it}' for it in range(16))};", *[f"multiply {EIGHT};"] * 6, ".end")(file)


def asked(file):
    """16 powers, of which a condition chooses 13: their symbols become sums one by one, and all are multiplied by a sum."""
    inputs = " + ".join(f"{it + 2}*x^{it % 4 + 13}*w^{it + 1}" for it in range(16))
    plain("Symbols x,y,z,w,a,b,c;", f"Local F = {inputs};", "if (count(x,1,w,2) > 22);", "repeat id once x = y - z;", "endif;", "multiply a + b*w - c;", ".end")(file)


def ordering(file):
    """8,000 words of two functions that don't commute, brought into normal order."""
    seeded = random.Random(17)
    file.write("Functions A,B;\nLocal F =\n")
    for term in range(8_000):
        file.write(f"  + {term + 1}*{'*'.join(seeded.choice('AB') for _ in range(10))}\n")
    plain(";", "repeat id A*B = B*A + 1;", ".end")(file)


def dense(file):
    """The product of two polynomials in four symbols that have all terms up to degree 12."""
    seeded, factors = random.Random(19), []
    for _ in range(2):
        terms = []
        for w, x, y, z in itertools.product(range(13), repeat=4):
            if w + x + y + z <= 12:
                terms.append(f"{seeded.randrange(1, 10)}*w^{w}*x^{x}*y^{y}*z^{z}")
        factors.append("(" + "\n  + ".join(terms) + ")")
    plain("Symbols w,x,y,z;", "Local F = " + "\n  * ".join(factors) + ";", ".end")(file)


RAISED = "(f(1,x) - f(2,y) + 3*f(a,4) + f(x+y,5) + f(b))^5*(g(a) + g(y) - 2*g(x,b))^3*(x - y + a/2 + b)^3"


def quartic(file):
    """The invariants of a binary quartic and its discriminant, whose coefficients become those under a linear substitution."""
    ids = []
    for new in range(5):
        terms = []
        for old in range(5):
            for from_x in range(max(0, new - old), min(4 - old, new) + 1):
                from_y = new - from_x
                times = math.comb(4, old) * math.comb(4 - old, from_x) * math.comb(old, from_y)
                terms.append(f"{times}/{math.comb(4, new)}*b{old}*p^{4 - old - from_x}*q^{from_x}*r^{old - from_y}*s^{from_y}")
        ids.append(f"id a{new} = {' + '.join(terms)};")
    first = ["Symbols a0,a1,a2,a3,a4,b0,b1,b2,b3,b4,p,q,r,s;", "Local I = a0*a4 - 4*a1*a3 + 3*a2^2;", "Local J = a0*a2*a4 - a0*a3^2 - a1^2*a4 + 2*a1*a2*a3 - a2^3;"]
    plain(*first, ".sort", "Local D = I^3 - 27*J^2;", ".sort", *ids, ".end")(file)


ALL = [
    Program("product", "a product of ten sums of four to six terms over ten symbols", 4_608_000, product),
    Program("modules", "the same, one sum a module", 869_350, modules),
    Program("literal_sum", "a written sum of 300,000 terms with fractions and powers over twelve symbols", 300_000, literal_sum),
    Program("printed_sum", "the same, printed", 300_000, lambda file: literal_sum(file, printed=True)),
    Program("power_five", "a sum of five terms to the ninth, printed", 5 ** 9, plain("Symbols a,b,c,d,e;", "Local F = (a + 2*b - 3*c + d/2 - e)^9;", "Print;", ".end")),
    Program("past_the_limit", "(x+y)^1000, refused after 10,000,000 terms", 10_000_000, plain("Symbols x,y;", "Local F = (x+y)^1000;", ".end"), status=4, in_form=False),
    Program("raised", "powers of sums of functions with arguments, and of symbols", 5 ** 5 * 3 ** 3 * 4 ** 3, plain("Symbols a,b,x,y;", "CFunctions f,g;", f"Local F = {RAISED};", ".end")),
    Program("dense", "the product of two polynomials in four symbols with all terms up to degree 12", 1820 ** 2, dense),
    Program("functions", "a product of ten sums of functions with arguments, and of words", 4 ** 5 * 3 ** 5, functions),
    Program("loop", "a loop of the preprocessor with 40,000 turns", 40_000, LOOP),
    Program("patterns", "three ids with wildcards over 25,000 terms of ten factors", None, patterns),
    Program("fields", "an id with two fields over 20,000 terms with functions of eight arguments", None, fields),
    Program("words", "six ids that exchange two functions in 20,000 words of eight", None, words),
    Program("dot_products", "three ids that put sums in the place of dot products in 10,000 terms", None, dot_products),
    Program("wildcards", "powers of sums of functions with arguments, and of symbols, and three ids with wildcards for numbers, fields and powers", None, plain("Symbols a,b,x,y,n;", "CFunctions f,g,h;", f"Local F = {RAISED};", "id f(n?,x?) = n*h(x+n);", "id g(?a,b) = h(?a) - g(b,?a);", "id x^n? = (n+1)*y^n;", ".end")),
    Program("alsos", "powers of two sums, and three ids each with an also", None, plain("Symbols a,b,c,d,x,y,z;", "Local F = (a + b - 2*c + d)^6*(x + a - y + z)^4;", "id a^2 = b + x;", "also b = c - y;", "id c^2 = x*y - d;", "also d = z + 1;", "id x = y + z;", "also y = z - 2*x;", ".end")),
    Program("recursion", "f(n) = f(n-1) + f(n-2), from f(24) to its end", None, plain("Symbols x,n;", "CFunctions f;", "Local F = f(24);", "repeat;", "id f(0) = 1;", "id f(1) = x;", "id f(n?) = f(n-1) + f(n-2);", "endrepeat;", ".end")),
    Program("quartic", "five ids that put sums in the place of a quartic's coefficients in its invariants and its discriminant", None, quartic),
    Program("multiplied", "16 terms multiplied six times by a sum of eight", 16 * 8 ** 6, multiplied),
    Program("asked", "16 powers, of which a condition chooses 13, whose symbols become sums one by one, times a sum", 3 * (2 ** 13 * 3 + 2 ** 14 * 3 + 2 ** 15 * 3 + 2 ** 16 * 4 + 3), asked),
    Program("ordering", "8,000 words of ten functions that don't commute, brought into normal order", None, ordering),
]

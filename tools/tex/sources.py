#!/usr/bin/env python3
# sources.py [N [SEED]]: reads the texts of tools/oracle/sources and N random ones with pltotf and with the model of that script, and says where they differ in
# whether there is a message. Needs pltotf; writes into a temporary folder. Only messages of reading tell a line: of loops and missing characters none does.
import importlib.machinery, importlib.util, os, random, re, subprocess, sys, tempfile

here = os.path.dirname(os.path.abspath(__file__))
path = os.path.join(here, "..", "oracle", "sources")
loader = importlib.machinery.SourceFileLoader("sources", path)
model = importlib.util.module_from_spec(importlib.util.spec_from_loader("sources", loader))
sys.dont_write_bytecode = True
loader.exec_module(model)


def messages(text, folder):
    """What pltotf says while it reads: the messages that tell a line."""
    source = os.path.join(folder, "a.pl")
    with open(source, "wb") as file:
        file.write(text)
    done = subprocess.run(["pltotf", source, os.path.join(folder, "a.tfm")], capture_output=True)
    said = (done.stdout + done.stderr).decode("latin-1").splitlines()
    return [line for line in said if "(line " in line]


def main():
    count = int(sys.argv[1]) if len(sys.argv) > 1 else 300
    rng = random.Random(int(sys.argv[2]) if len(sys.argv) > 2 else 1)
    differ = refused = 0
    cases = [t for t in model.texts()] + [model.any_text(rng) for _ in range(count)]
    with tempfile.TemporaryDirectory() as folder:
        for text in cases:
            data = text.encode("latin-1")
            if re.search(rb"\r(?!\n)", data):  # to pltotf a carriage return alone ends a line
                continue
            said = messages(data, folder)
            try:
                model.Reader(data).read()
                own = ""
            except model.Message as message:
                own = str(message)
            refused += own != ""
            if own == "name" and not said:  # a list that pltotf knows and the request does not
                continue
            if (own != "") != bool(said):
                differ += 1
                print(repr(text), "| pltotf:", said[:2], "| model:", own or "read")
    print("sources.py: %d texts, %d refused, %d differ" % (len(cases), refused, differ))
    sys.exit(1 if differ else 0)


main()

"""run.py NOTEBOOK [--write]: runs the cells of a notebook one after the other, by Python alone, and compares what each puts out with what the file has.
With --write the file gets what they put out."""

import ast
import contextlib
import io
import json
import sys


def shown(value):
    """The output that a notebook has of the value of a cell's last line."""
    data = {"text/plain": lines(repr(value))}
    if hasattr(value, "_repr_svg_"):
        data = {"image/svg+xml": lines(value._repr_svg_()), **data}
    return data


def lines(text):
    """A text as a notebook keeps it."""
    return text.splitlines(keepends=True)


def run(source, names, count):
    """What a cell puts out. If its last line is an expression, its value is shown."""
    printed = io.StringIO()
    tree = ast.parse(source)
    last = ast.Expression(tree.body.pop().value) if isinstance(tree.body[-1], ast.Expr) else None
    with contextlib.redirect_stdout(printed):
        exec(compile(tree, "cell", "exec"), names)
        value = last and eval(compile(last, "cell", "eval"), names)
    outputs = []
    if printed.getvalue():
        outputs.append({"name": "stdout", "output_type": "stream", "text": lines(printed.getvalue())})
    if value is not None:
        outputs.append({"data": shown(value), "execution_count": count, "metadata": {}, "output_type": "execute_result"})
    return outputs


def main(path, is_written):
    with open(path) as file:
        notebook = json.load(file)
    names, count = {}, 0
    for cell in notebook["cells"]:
        if cell["cell_type"] != "code":
            continue
        count += 1
        outputs = run("".join(cell["source"]), names, count)
        if not is_written:
            print(f"cell {count}: {len(outputs)} outputs, {'the same' if outputs == cell['outputs'] and count == cell['execution_count'] else 'other than in the file'}")
        cell["outputs"], cell["execution_count"] = outputs, count
    if is_written:
        with open(path, "w") as file:
            file.write(json.dumps(notebook, indent=1, ensure_ascii=False) + "\n")


main(sys.argv[1], "--write" in sys.argv)

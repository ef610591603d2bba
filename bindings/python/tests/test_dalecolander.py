"""What the package adds to the library: values, errors and the calls of Jinja2."""
import threading
import unittest

from dalecolander import ContextRefused, Environment, Place, RenderFailed, RequestRefused, TemplateError, TemplateRefused
from dalecolander.library import text_of


class Renders(unittest.TestCase):
    def test_hello(self):
        environment = Environment({"hello.html": "Hello {{ name }}!"})
        self.assertEqual(environment.get_template("hello.html").render(name="<World>"), "Hello &lt;World&gt;!")

    def test_later_names_count(self):
        self.assertEqual(Environment().from_string("{{ a }}{{ b }}").render({"a": 1, "b": 2}, b=3), "13")

    def test_values(self):
        template = Environment().from_string("{{ x }}")
        for value, text in [(None, "none"), (True, "true"), ((1, "a"), '[1, "a"]'), (iter([1, 2]), "[1, 2]"), ({"k": 1}, '{"k": 1}'), (-5, "-5")]:
            with self.subTest(value=value):
                self.assertEqual(template.render(x=value), text)

    def test_texts_of_all_kinds(self):
        for text in ["", "\0", "é", "\U0001f600", '"\\', "\u2028"]:
            with self.subTest(text=text):
                self.assertEqual(Environment().from_string("{{ x }}").render(x=text), text)

    def test_floats(self):
        self.assertEqual(Environment(floats="text").from_string("{{ x }}{{ y[0] }}").render(x=1.5, y=[0.1]), "1.50.1")
        with self.assertRaises(ContextRefused) as refused:
            Environment().from_string("{{ x }}").render(x=1.5)
        self.assertEqual(refused.exception.kinds, ("NoFloats",))

        with self.assertRaises(ValueError):
            Environment(floats="text").from_string("{{ x }}").render(x=float("nan"))

    def test_others_are_refused(self):
        for value in [b"a", object(), 1j]:
            with self.subTest(value=value), self.assertRaises(TypeError):
                Environment().from_string("{{ x }}").render(x=value)

    def test_builtins(self):
        self.assertEqual(Environment(builtins=True).from_string("{{ x | upper }}").render(x="a"), "A")
        with self.assertRaises(TemplateError) as refused:
            Environment().from_string("{{ x | upper }}").render(x="a")
        self.assertEqual(refused.exception.kinds, ("UnknownFilter",))

    def test_syntax(self):
        environment = Environment({"t": "<< x >>{{ x }}"}, variable_start="<<", variable_end=">>")
        self.assertEqual(environment.get_template("t").render(x=1), "1{{ x }}")
        with self.assertRaises(RequestRefused) as refused:
            Environment(variable_start="").from_string("").render()
        self.assertEqual(refused.exception.kinds, ("InvalidDelimiter",))

    def test_autoescape(self):
        for given, text in [(True, "&lt;"), (False, "<"), ("html", "&lt;"), ("none", "<"), ("name", "<")]:
            with self.subTest(given=given):
                self.assertEqual(Environment(autoescape=given).from_string("{{ x }}").render(x="<"), text)

    def test_long_replies(self):
        self.assertEqual(len(Environment().from_string("{% for i in range(x) %}abcdefgh{% endfor %}").render(x=50_000)), 400_000)

    def test_names(self):
        environment = Environment({"a": "{% include 'b' %}{{ x }}", "b": "{{ y }}"})
        self.assertLessEqual({"x", "y"}, set(environment.context_names("a")))
        self.assertIn("y", environment.get_template("b").context_names())
        self.assertNotIn("z", environment.context_names("a"))

    def test_threads(self):
        environment, texts = Environment({"t": "{{ x }}" * 100}), []

        def many(number):
            texts.extend(environment.get_template("t").render(x=number) == str(number) * 100 for _ in range(50))

        threads = [threading.Thread(target=many, args=(number,)) for number in range(4)]
        for thread in threads:
            thread.start()
        for thread in threads:
            thread.join()
        self.assertEqual(texts, [True] * 200)


class Sessions(unittest.TestCase):
    def test_stay(self):
        template = Environment({"t": "{{ x }}{{ y }}"}, undefined="strict").get_template("t")
        for number in range(100):
            self.assertEqual(template.render(x=number, y=""), str(number))
            with self.assertRaises(RenderFailed):
                template.render(x=number)

    def test_added_templates(self):
        environment = Environment({"t": "a"})
        template = environment.get_template("t")
        self.assertEqual(template.render(), "a")
        environment.add_template("t", "b")
        self.assertEqual(template.render(), "b")

    def test_json(self):
        template = Environment({"t": "{{ x }}"}).get_template("t")
        self.assertEqual(template.render_json(b'{"x": 1}'), "1")
        for context in (b"[1]", b'{"x": 1', b"\xff"):
            with self.subTest(context=context), self.assertRaises(ContextRefused):
                template.render_json(context)

    def test_given_up_elsewhere(self):
        environments = [Environment({"t": "{{ x }}"}) for _ in range(8)]
        self.assertEqual([environment.get_template("t").render(x=1) for environment in environments], ["1"] * 8)
        thread = threading.Thread(target=environments.clear)
        thread.start()
        thread.join()
        self.assertEqual(Environment().from_string("{{ x }}").render(x=2), "2")

    def test_of_another_thread(self):
        session, raised = Environment({"t": ""})._session(), []

        def render():
            try:
                session.render(text_of(b"t"), b"")
            except RuntimeError as error:
                raised.append(str(error))

        thread = threading.Thread(target=render)
        thread.start()
        thread.join()
        self.assertEqual(len(raised), 1)


class Errors(unittest.TestCase):
    def test_where(self):
        environment = Environment({"a": "{% include 'b' %}", "b": "x\n {{ y.z }}"})
        with self.assertRaises(RenderFailed) as failed:
            environment.get_template("a").render()
        error = failed.exception
        self.assertEqual(error.kinds, ("BadInclude", "UndefinedError"))
        self.assertEqual((error.name, error.line), ("a", 1))
        self.assertEqual([str(place)[:3] for place in error.places], ["a:1", "b:2"])
        self.assertIsInstance(error.places[1], Place)
        self.assertEqual(type(error).__name__, "BadInclude")

    def test_what_was_written(self):
        with self.assertRaises(RenderFailed) as failed:
            Environment(fuel=3).from_string("a{% for i in range(100) %}b{% endfor %}").render()
        self.assertEqual(failed.exception.kinds, ("OutOfFuel",))
        self.assertTrue(failed.exception.text.startswith("a"))

    def test_refused_template(self):
        with self.assertRaises(TemplateRefused) as refused:
            Environment({"t": "a\n{% if %}"}).get_template("t").render()
        self.assertEqual(refused.exception.kinds, ("SyntaxError",))
        self.assertEqual(refused.exception.line, 2)

    def test_missing_template(self):
        with self.assertRaises(TemplateRefused) as refused:
            Environment().get_template("t").render()
        self.assertEqual(refused.exception.kinds, ("TemplateNotFound",))

    def test_malformed_setting(self):
        for setting in ("undefined", "floats", "autoescape"):
            with self.subTest(setting=setting), self.assertRaises(RequestRefused) as refused:
                Environment(**{setting: "loose"}).from_string("").render()
            self.assertEqual(refused.exception.member, setting)


if __name__ == "__main__":
    unittest.main()

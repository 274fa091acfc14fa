"""How the library is found, what the wheel has in it, and the examples of the README."""
import ast
import asyncio
import importlib.util
import os
import pathlib
import re
import subprocess
import sys
import tempfile
import unittest
import zipfile

import ymx

HERE = pathlib.Path(__file__).resolve().parent.parent
README = (HERE / "README.md").read_text()


class Library(unittest.TestCase):
    def imported(self, **environment):
        """What `import ymx` says in a process of its own, with no library where the system looks for it."""
        base = {name: value for name, value in os.environ.items() if name not in ("YMX_LIBRARY", "LD_LIBRARY_PATH")}
        base["PYTHONPATH"] = os.path.dirname(os.path.dirname(ymx.__file__))
        words = [sys.executable, "-c", "import ymx; print(ymx.version())"]
        return subprocess.run(words, env={**base, **environment}, capture_output=True, text=True)

    def compiled(self, folder, name, text):
        path = os.path.join(folder, name)
        subprocess.run(["cc", "-shared", "-fPIC", "-xc", "-", "-o", path], input=text, text=True, check=True)
        return path

    def test_where_there_is_none_the_error_says_what_to_do(self):
        with tempfile.TemporaryDirectory() as folder:
            # of another major version, which another program may have installed
            self.compiled(folder, "libymx.so.1", 'const char *ymx_version(void) { return "1.0.0"; }')
            os.symlink("libymx.so.1", os.path.join(folder, "libymx.so"))
            said = self.imported(LD_LIBRARY_PATH=folder)
        if said.returncode == 0:
            self.skipTest("libymx.so.0 is installed in this system")
        self.assertRegex(said.stderr, r"ImportError: libymx\.so\.0 isn't found.*YMX_LIBRARY")

    def test_the_file_that_YMX_LIBRARY_names_is_taken_if_it_is_one(self):
        path = os.environ.get("YMX_LIBRARY")
        if path:
            self.assertEqual(self.imported(YMX_LIBRARY=path).stdout.strip(), ymx.version())
        said = self.imported(YMX_LIBRARY="/nowhere/libymx.so.0").stderr
        self.assertRegex(said, "ImportError: YMX_LIBRARY names /nowhere/libymx.so.0, which can't be loaded")
        with tempfile.TemporaryDirectory() as folder:
            other = self.compiled(folder, "other.so", "int other;")
            self.assertRegex(self.imported(YMX_LIBRARY=other).stderr, "ImportError: .*other.so has no ymx_version")
            for version in "1.2.0", "0.1.9":
                text = f'const char *ymx_version(void) {{ return "{version}"; }}'
                later = self.compiled(folder, version + ".so", text)
                said = self.imported(YMX_LIBRARY=later).stderr
                self.assertRegex(said, f"ImportError: .* is version {version} of libymx: YMX_LIBRARY is to name")


class Wheel(unittest.TestCase):
    def test_the_licence_is_in_the_wheel_and_the_source_archive(self):
        if importlib.util.find_spec("setuptools") is None or importlib.util.find_spec("wheel") is None:
            self.skipTest("there is no setuptools, or no wheel")
        with tempfile.TemporaryDirectory() as folder:
            words = ["-m", "pip", "wheel", "--no-deps", "--no-build-isolation", "--no-index", "-w", folder, "./python"]
            copied = os.path.join(folder, "python")  # as setuptools leaves folders where it builds
            subprocess.run(["cp", "-RL", HERE, copied], check=True)
            done = subprocess.run([sys.executable, *words], cwd=folder, capture_output=True, text=True)
            self.assertEqual(done.returncode, 0, done.stdout + done.stderr)
            (wheel,) = pathlib.Path(folder).glob("*.whl")
            with zipfile.ZipFile(wheel) as archive:
                names = archive.namelist()
                (licence,) = (name for name in names if name.endswith("LICENSE"))
                self.assertIn("MIT License", archive.read(licence).decode())
        self.assertIn("ymx/py.typed", names)
        self.assertIn("ymx/streams.py", names)

    def test_it_is_the_licence_of_the_repository(self):
        whole = HERE.parent.parent / "LICENSE"
        if not whole.exists():
            self.skipTest("this is not the repository")
        self.assertEqual((HERE / "LICENSE").read_text(), whole.read_text())


class Examples(unittest.IsolatedAsyncioTestCase):
    """Each block of the README, as it stands, but for the port."""

    def blocks(self):
        return re.findall(r"```python\n(.*?)```", README, re.S)

    async def run_block(self, text, names, port=None):
        text = text if port is None else text.replace("4000", str(port))
        code = compile(text, "README.md", "exec", flags=ast.PyCF_ALLOW_TOP_LEVEL_AWAIT)
        running = eval(code, names)
        if running is not None:
            await running
        return names

    async def test_client_and_server(self):
        client, *servers, blocking = self.blocks()
        self.assertEqual(len(servers), 2)
        for server in servers:
            names = {"asyncio": asyncio, "ymx": ymx}
            await self.run_block(server.replace("4000", "0"), names)
            listener = names["server"]
            port = listener.sockets[0].getsockname()[1]
            for _ in range(3):
                said = await asyncio.wait_for(self.run_block(client, {}, port), 10)
                self.assertEqual(said["answer"], b"hello")
            said = {}
            await asyncio.get_running_loop().run_in_executor(None, exec, blocking.replace("4000", str(port)), said)
            self.assertEqual(said["answer"], b"hello")
            listener.close()


if __name__ == "__main__":
    unittest.main()

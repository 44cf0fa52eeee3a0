"""Threads share an expression, and pass it on to one another."""
import threading
import unittest

import numpy as np
from yurkije import Expression


class Threads(unittest.TestCase):
    def test_threads_have_the_same_answers(self):
        made = Expression("a * 3 + 1 as more, t like '%7%' as found", {"a": "i64", "t": "utf8"})
        a = np.arange(5000)
        columns = {"a": a, "t": [str(row) for row in range(5000)]}
        expected = made.run(columns)["found"].tolist()
        faults = []

        def work():
            for _ in range(20):
                answers = made.run(columns)
                if answers["more"].tolist() != (a * 3 + 1).tolist() or answers["found"].tolist() != expected:
                    faults.append(1)

        threads = [threading.Thread(target=work) for _ in range(4)]
        for thread in threads:
            thread.start()
        for thread in threads:
            thread.join()
        self.assertEqual(faults, [])

    def test_an_expression_goes_from_thread_to_thread(self):
        made, texts = [], ["a + 1", "a * 7", "a - 1", "a * a"]

        def read():
            made.extend(Expression(text, {"a": "i64"}) for text in texts)

        reader = threading.Thread(target=read)
        reader.start()
        reader.join()
        self.assertEqual([one.run({"a": [3]}).column(0).tolist() for one in made], [[4], [21], [2], [9]])

    def test_an_expression_is_dropped_by_another_thread(self):
        held = [Expression("a + 1", {"a": "i64"})]
        thread = threading.Thread(target=held.clear)
        thread.start()
        thread.join()
        self.assertEqual(held, [])


if __name__ == "__main__":
    unittest.main()

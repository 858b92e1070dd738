"""What is known of a fault of a text: the refusal, its place, what is so in words, and what the mistake is known by."""
from collections import namedtuple

# `why` is the refusal as the program writes it, and None of a query; `at` is its place in bytes; `said` what is so, in words;
# `could` are the kinds of tokens that could stand there, `near` is what stands near its place, `names` are those that it may have
Looked = namedtuple("Looked", "why at said sign could query near names", defaults=[None, None, None, ()])
# what a mistake is known by: the number of the refusal; what stands at its place, or what is named; what stands before it and
# behind it; what could stand there
Sign = namedtuple("Sign", "number what before behind could", defaults=[(), (), None])

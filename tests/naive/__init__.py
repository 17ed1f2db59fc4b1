"""The evaluator's parts, written from the paper 01 alone. Paragraphs are named as 01 heads them."""

"""Methods of random code, and what a Java machine's verifier says of them."""

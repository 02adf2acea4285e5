"""The text and binary formats of components, as they are published: from a text to its bytes and origins, or to its refusal."""

"""What looks at the documents, the definitions and the script `rumtsafi`, and makes what goes by other files."""

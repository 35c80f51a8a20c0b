"""Makes random Java programs, lets a Java machine answer their calls, and compares or writes rows."""

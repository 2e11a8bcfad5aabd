"""Makes the files of a release: an archive, a Debian package, a wheel and a crate. The same inputs give the same bytes."""

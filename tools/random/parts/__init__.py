"""Parts of the generator of random projects."""

"""What makes the reference of the Python client: the page that a release and the packages bring as
api.md."""

"""What tools/doctor stands on; tools/new-match copies it to each machine beside the tool."""

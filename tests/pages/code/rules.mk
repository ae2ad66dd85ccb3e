{% for rule in rules %}{{ rule.out }}:{% for part in rule.of %} {{ part }}{% endfor %}
{% for line in rule.run %}	{{ line | safe }}
{% endfor %}
{% else %}all:
{% endfor %}
